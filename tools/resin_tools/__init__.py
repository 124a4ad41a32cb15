"""The tools around the engine. They speak with it by the formats of docs/FORMATS.md alone, and nothing of them is proved."""
