"""The exception that ends a run: a result that differs from the expected one."""


class Disagreement(Exception):
    pass


def expect(call, wanted, found):
    if wanted != found:
        wanted, found = (it.hex() if isinstance(it, bytes) else it for it in (wanted, found))
        raise Disagreement(f"{call}: wanted {wanted}, found {found}")
