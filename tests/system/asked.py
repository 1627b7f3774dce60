"""The words that a script of this folder takes."""

import argparse


def words(about, *names, **forms):
    """The words that stand for these names or, after the word that chooses it, those of one of the forms.

    `--help` prints what the script says about itself. Other words end it with status 2 and the usage.
    """
    parser = argparse.ArgumentParser(description=about, formatter_class=argparse.RawDescriptionHelpFormatter)
    add(parser, names)
    if forms:
        chosen = parser.add_subparsers(dest="form", required=True)
        for form, of_form in forms.items():
            add(chosen.add_parser(form), of_form.split())
    return [*vars(parser.parse_args()).values()]


def add(parser, names):
    """Has a parser take a word for each name, and all that follow for one that ends in two dots."""
    for name in names:
        parser.add_argument(name, nargs=argparse.REMAINDER if name.endswith("..") else None)
