"""The picture of a run: what there is to draw, and its parts as SVG."""
