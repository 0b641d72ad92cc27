"""What runs of a program are compared by."""
import os


def differs(name, got, wanted):
    """Where the status, the output or the standard error of a run is not the wanted one, if one is not."""
    for what, came, due in zip(("status", "output", "standard error"), got, wanted):
        if came != due:
            if what == "output":
                number = os.path.commonprefix([came, due]).count(b"\n")
                what, came, due = f"line {number + 1}", *(it.split(b"\n")[number:][:1] for it in (came, due))
            return f"{name}: {what} is {str(came)[:160]}, not {str(due)[:160]}"
    return ""
