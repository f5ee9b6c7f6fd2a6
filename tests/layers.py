#!/usr/bin/env python3
"""Draws the crates by layers, as docs/layers.svg: tests/layers.py > docs/layers.svg

What stands on what comes from crates.txt: a line leads to each crate below that no other crate between them has. Only the place of a crate is said here. The
libraries of cases and of worked examples are left out.
"""

import os
import sys

sys.path.insert(0, os.path.dirname(os.path.abspath(__file__)))
import crates

# The layers from the top, each with its crates from left to right.
LAYERS = [
    ("programs", ["punthizha", "graphs"]),
    ("commands", ["pv_top", "pv_draw", "pv_words"]),
    ("reports", ["pv_links", "pv_sections", "pv_migrate", "pv_differences", "pv_report", "pv_drawings"]),
    ("certificates made", ["pv_certify", "pv_explain", "pv_writer", "pv_paths", "pv_trim"]),
    ("the search", ["pv_prove", "pv_grounds", "pv_rounds", "pv_saturate", "pv_touched", "pv_closings"]),
    ("parts of a round", ["pv_match", "pv_marks", "pv_standing", "pv_witness", "pv_instances", "pv_induct", "pv_classes"]),
    ("what it may answer", ["pv_heights"]),
    ("certificates read", ["pv_rules", "pv_check", "pv_lemmas", "pv_chain", "pv_cert", "pv_endings"]),
    ("axioms and steps", ["pv_axioms", "pv_steps", "pv_scalar", "pv_loopax", "pv_heapax", "pv_choiceax", "pv_pattern"]),
    ("building graphs", ["pv_build", "pv_layout", "pv_block", "pv_fold", "pv_terms", "pv_decide"]),
    ("why they are right", ["pv_outcomes", "pv_conversion", "pv_runs", "pv_equations"]),
    ("methods", ["pv_refute", "pv_machine", "pv_flow", "pv_live", "pv_frame", "pv_loops"]),
    ("graphs", ["pv_counted", "pv_alike", "pv_denote", "pv_graph"]),
    ("random methods", ["pv_maker"]),
    ("listings", ["pv_asm", "pv_listing"]),
    ("bytes", ["pv_insn", "pv_class", "pv_pool", "pv_token"]),
    ("ground", ["pv_base", "pv_pieces", "pv_types", "pv_format", "pv_value", "pv_list"]),
]
WIDTH, HEIGHT, LEFT, ACROSS, DOWN = 104, 26, 140, 124, 62


def places():
    """The upper left corner of each crate."""
    found = {}
    for row, (_, names) in enumerate(LAYERS):
        shown = [it for it in names if it in LISTS]
        for column, name in enumerate(shown):
            found[name] = LEFT + column * ACROSS + row % 2 * 30, 16 + row * DOWN
    return found


def stands_on(name):
    """The crates on which a crate stands at once."""
    below = [it for it in LISTS[name] if it in LISTS]
    return [it for it in below if not any(it in BELOW[other] for other in below)]


def drawing():
    at = places()
    missing = [it for it in LISTS if it not in at and not it.startswith(("cases", "examples"))]
    if missing:
        sys.exit(f"no layer for {', '.join(missing)}")
    wide, high = LEFT + 7 * ACROSS + 30, len(LAYERS) * DOWN
    yield f'<svg xmlns="http://www.w3.org/2000/svg" width="{wide}" height="{high}" font-family="sans-serif" font-size="12">'
    yield f'<rect width="{wide}" height="{high}" fill="#fff"/>'
    for name, (x, y) in at.items():
        for it in stands_on(name):
            u, v = at[it]
            start, end = (y + HEIGHT / 2, v + HEIGHT / 2) if y == v else (y + HEIGHT, v)
            yield f'<line x1="{x + WIDTH / 2}" y1="{start}" x2="{u + WIDTH / 2}" y2="{end}" stroke="#bbb"/>'
    for row, (layer, _) in enumerate(LAYERS):
        yield f'<text x="8" y="{16 + row * DOWN + 17}" fill="#555">{layer}</text>'
    for name, (x, y) in at.items():
        yield f'<rect x="{x}" y="{y}" width="{WIDTH}" height="{HEIGHT}" rx="4" fill="#fff" stroke="#333"/>'
        yield f'<text x="{x + WIDTH / 2}" y="{y + 17}" text-anchor="middle">{name}</text>'
    yield "</svg>"


LISTS = crates.listed()
BELOW = crates.below(LISTS)
if __name__ == "__main__":
    print("\n".join(drawing()))
