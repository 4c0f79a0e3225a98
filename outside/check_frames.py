#!/usr/bin/env python3
"""The parts of the program `check_frames`: the files that they are run on, and what they have to print.

    python3 check_frames.py ../crates/check_frames

writes the files, the input and the expected output.
"""
import pathlib
import sys

import hostile_messages
import join_samples
import message_samples
import part_samples
import piece_samples
import schema_places
import value_cases


def parts():
    """Of each part its name, its file and what that has, and what the part prints."""
    samples = message_samples.samples_capture()
    messages, joins, cut = message_samples.capture(), join_samples.capture(), part_samples.capture()
    lines, answers = value_cases.cases()
    yield "messages", "messages.cap", messages, message_samples.answer()
    yield "hostile", "samples.cap", samples, "".join(hostile_messages.answer(samples))
    yield "joins", "joins.cap", joins, join_samples.answer()
    yield "parts", "parts.cap", cut, part_samples.answer()
    for file, capture in (("messages.cap", messages), ("joins.cap", joins), ("parts.cap", cut)):
        yield "pieces", file, capture, piece_samples.pieces_answer(capture)
    yield "feeds", "feeds.txt", piece_samples.lines().encode(), piece_samples.answer()
    yield "values", "values.txt", lines.encode(), answers


def main():
    folder = pathlib.Path(sys.argv[1])
    lines, answers = [], []
    for part, file, content, answer in parts():
        (folder / "data" / file).write_bytes(content)
        lines.append(f"{part} {file}\n")
        answers.append(f"# {part} {file}\n{answer}")
    lines.append("places\n")
    answers.append("# places\n" + schema_places.answer())
    (folder / "stdin").write_text("".join(lines))
    (folder / "stdout").write_text("".join(answers))


if __name__ == "__main__":
    main()
