"""Shared by scripts that check something, and count what is right and wrong."""


def status_of(who, *checks):
    """Runs the checks, prints what is wrong, and how many are right and wrong, and returns the exit status, which is also 1 if
    nothing was checked. Each check is given a function that it calls with whether something is right, and with what it is."""
    right, wrong = [], []

    def tell(is_right, text):
        (right if is_right else wrong).append(text)
        if not is_right:
            print("%s: %s" % (who, text))

    for check in checks:
        check(tell)
    print("%d right, %d wrong" % (len(right), len(wrong)))
    return 0 if right and not wrong else 1
