"""What makes files and what compares them: the steps of `./generate`, and of `./generate --check` and `./check`."""
# What makes files, in the order in which one reads what another makes; the words that make and that check.
STEPS = (
    ("tools/kind_names", ["--write"], ["--check"]),
    ("tools/operators", ["--write"], ["--check"]),
    ("tools/rust_kinds", ["--write"], ["--check"]),
    ("tools/grammar", ["--write"], ["--check"]),
    ("tools/views", ["--write"], ["--check"]),
    ("bindings/make", ["--write"], ["--check"]),
    ("tools/api", ["--write"], ["--check"]),
    ("tools/public_names", ["--write"], []),
    ("tools/crate_list", ["--write"], []),
    ("tools/proved", ["--write"], ["--check"]),
)
# What compares files that are written by hand.
COMPARED = (("tools/railroad", ["--check"]), ("tests/tour", []), ("tests/scripts", []), ("tests/widths", []))


def made():
    """The commands that make files, each as its words."""
    return [[script, *words] for script, words, _ in STEPS]


def checked():
    """The commands that compare files, each as its words."""
    return [[script, *words] for script, _, words in STEPS] + [[script, *words] for script, words in COMPARED]
