//! "Geometry and tables": maps of ways.

/// "A map is a 16-bit word whose bit w stands for way w."
pub type Map = u16;

/// The map of way `way` alone.
pub fn only(way: usize) -> Map {
    1 << way
}

/// The map of all ways below `ways`, which may be 16.
pub fn all_ways(ways: usize) -> Map {
    ((1u32 << ways) - 1) as Map
}

/// How many places of a map are set in the maps of a table, all sets together.
pub fn set_places(table: &[Map], map: Map) -> u32 {
    table.iter().map(|of_set| (of_set & map).count_ones()).sum()
}

pub fn holds(map: Map, way: usize) -> bool {
    map & only(way) != 0
}

/// The way that the block's priority encoder gives of a map, if the map holds one. By document 02 "the highest way now
/// wins".
pub fn encoded(map: Map) -> Option<usize> {
    (0..Map::BITS as usize).rev().find(|&way| holds(map, way))
}

#[cfg(test)]
mod tests {
    use super::*;

    /// Every map but the empty one: the way is in it, and no higher way is.
    #[test]
    fn the_encoder_gives_the_highest_way() {
        assert_eq!(encoded(0), None);
        for map in 1..=Map::MAX {
            let way = encoded(map).expect("a way");
            assert!(holds(map, way) && u32::from(map) < 2 << way, "map {map}");
        }
    }
}
