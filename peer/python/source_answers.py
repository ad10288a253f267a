"""What `java2sdg plain` and `java2sdg replay` have to print, from the bytes of the files."""

import java_profile
import run_texts
import source_steps


def replayed(program, calls, history):
    ended, source, steps = run_texts.follow(program, calls, history)
    lines = [f"result {number} {source.calls[number - 1].outcome}" for number in ended]
    return [*lines, f"end {len(ended)} results, {steps} steps"]


def plain(program, calls):
    source = source_steps.Source(program, calls, 1)
    lines = []
    for number, call in enumerate(source.calls, 1):
        source.run_whole(number)
        lines.append(f"result {number} {call.outcome}")
    return [*lines, f"end {len(calls)} results"]


def answer(class_text, calls_text, history_text=None):
    """The status and the text that is printed, without a history those of `plain`. The class is one that is accepted."""
    text = class_text.decode("latin-1")
    read = java_profile.read_class(text)
    partial = [each for each in read.fields if "Partial" in each.annotations]
    if history_text is None and partial:
        return 2, f"class refused: plain at {java_profile.place_of(text, partial[0].start)}\n"
    program = source_steps.Program(read)
    try:
        calls = run_texts.read_calls(calls_text, program)
        lines = plain(program, calls) if history_text is None else replayed(program, calls, history_text)
    except run_texts.Refused as refused:
        return 3, f"{refused}\n"
    return 0, "".join(f"{line}\n" for line in lines)
