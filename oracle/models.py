#!/usr/bin/env python3
"""Answers every request of the program `ask`: by the model of the scope (model.py) and that of the record layer (records.py).

    python3 oracle/models.py < requests > answers
"""
import model
import records

CALLS = {**model.CALLS, **records.CALLS}


def answer(line):
    """The line that the program `ask` must give for a request."""
    return model.answer(line, CALLS)


if __name__ == "__main__":
    model.main(CALLS)
