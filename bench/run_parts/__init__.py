"""The parts of `bench/run`, by what they measure, and what `hostile.py` uses of them."""
from run_parts.inputs import object_path, object_text, tree_content
from run_parts.tools import compiled, place_with_room, program_path
