"""The front end: trace texts, and the proved programs' answers laid out for a reader. It computes no answer itself."""
