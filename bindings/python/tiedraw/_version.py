"""The version of the binding, and the text of a version that the library tells as a number."""

__version__ = "0.4.4"


def text_of(number: int) -> str:
    """The version whose number this is: major * 1000000 + minor * 1000 + patch."""
    return f"{number // 1000000}.{number // 1000 % 1000}.{number % 1000}"


def series(version: str) -> str:
    """Major and minor number. Library and binding belong together where these are equal."""
    return version.rpartition(".")[0]
