"""The proved and the unproved statements, in the text of docs/ASSUMPTIONS.md, which a test compares."""

PROVED = (
    (
        "No execution of a section takes longer than its bound",
        "The thread starts hard and awake, no thread writes slots or modes, "
        "the execution keeps your loop bounds",
    ),
    (
        "Some path within your loop bounds costs exactly the bound",
        "A path of the control-flow graph: no input may reach it",
    ),
    (
        "run, dump and phases write what the machine's definition says, cycle by cycle",
        "Status 0; the files are read and written faithfully",
    ),
)
"""Promises, each with its conditions."""

CHECKS = (
    (
        "The hardware is this profile.",
        "Nothing here is proved of a chip or of the published core. fp_record compares recorded signals with the definition",
    ),
    ("The image is the one that you flash.", "fp_budget compares image and executable."),
    ("The setup is the one that you use:", "slots, regions, modes, period, entries."),
    ("No thread has a permit,", "or you know what it writes, and when."),
    (
        "Inputs are fixed before the run.",
        "A plant that responds to the thread is a closed loop: that it models your hardware is your claim.",
    ),
    (
        "fp_budget says holds, with status 0 and no warning.",
        "bound alone isn't enough: it stops at a call or a branch out of the section.",
    ),
    (
        "Loop bounds are your claim.",
        "Each n of FP_LOOP is true for every input. State how you know. "
        "Nothing checks it; fp_visits compares it with a run.",
    ),
    (
        "A trap ends an execution.",
        "An expiry, a misaligned access or a refused access isn't in the bound, "
        "and neither is the handler.",
    ),
    (
        "A section isn't a period.",
        "It leaves out the wait for the first slot, and code between the wake and the section. "
        "--period bounds all of it.",
    ),
    (
        "The stack fits,",
        "as fp_stack has it. A stack overrun isn't detected until it leaves the region. "
        "No store may go beyond its array: it could overwrite a return address.",
    ),
    (
        "Marks don't stop the compiler.",
        "Computations in registers may move across a mark. Pin them with FP_KEEP, and compile with -g: "
        "fp_budget finds moved work by source lines.",
    ),
    (
        "Time has 64 bits.",
        "A loop that adds only to the low word stops waiting after 4.29 seconds.",
    ),
    (
        "A bound belongs to one image and one slots register.",
        "Ask again after every change",
    ),
    (
        "A long run breaks nothing.",
        "With the worst inputs that you know, fp_visits sees no execution above the bound and no claim broken.",
    ),
)
"""What whoever uses a bound must check: the numbered list of the page, in its order."""

TESTED = "The texts of the view and all tools in Python are tested, not proved."
