#!/usr/bin/env python3
"""Says what lb_tests_pages has to print: reads its commands from standard input. Lists and boxes are those of paper.py, paragraphs
and pages have rules of their own beside this file."""
import sys

from paper import Desk
from paper_pages import Pages
from paper_paragraphs import Paragraphs


class Whole(Paragraphs, Pages, Desk):
    """Commands on one list of nodes."""


def main():
    sys.setrecursionlimit(10000)
    desk = Whole('.')
    for line in sys.stdin:
        for answer in desk.run(*line.split()):
            print(answer)


if __name__ == '__main__':
    main()
