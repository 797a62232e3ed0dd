"""The processes that look for plans and for bounds. What they say is checked by who started them.

Isolated Python runs this file, with folders that its own modules come before as words: it loads the package of the
file's own folder, and no module of the working folder ever."""
import importlib
import importlib.util
import json
import pathlib
import sys


def begin() -> None:
    """Loads the package, which may be another one than that which is installed, and works."""
    sys.path += [path for path in sys.argv[1:] if path not in sys.path]
    folder = pathlib.Path(__file__).resolve().parent.parent
    spec = importlib.util.spec_from_file_location("nushbaret", folder / "__init__.py",
                                                  submodule_search_locations=[str(folder)])
    assert spec is not None and spec.loader is not None
    package = importlib.util.module_from_spec(spec)
    sys.modules["nushbaret"] = package
    spec.loader.exec_module(package)
    importlib.import_module("nushbaret.rows.worker").main()


def main() -> None:
    """Does the work that the first line names, with the model that it has, for so many seconds."""
    from .process import Channel, unpacked
    channel = Channel(sys.stdin, sys.stdout)
    channel.say(started=True)
    told = json.loads(channel.lines.readline())
    channel.plan, channel.cost = told["plan"], told["cost"]
    channel.listen()
    model = unpacked(told["model"])
    from .prover import look_for_all, look_for_bounds
    if told["role"] == "plans":
        look_for_all(model, channel, told["seconds"], told["sums"], told["known"])
    else:
        look_for_bounds(model, channel, told["seconds"], told["sums"])
    channel.say(done=told["role"])


if __name__ == "__main__":
    begin()
