"""The parts of `bench/edge`, by what they try, and what `edge_commands.py` uses of them."""
from edge_parts.folders import (
    LOCK_WAIT, MARKS, Unsound, WAIT, files_in, heads_in, refs_in, standing_in, temporaries_in,
)
from edge_parts.rooms import Room, counts_of, made, moments_in
from edge_parts.disks import Disk, cut_after_each, decoded
