"""What several scripts of .ci do alike."""

import importlib.machinery, importlib.util, os, socket, subprocess, sys, time

ROOT = os.path.dirname(os.path.dirname(os.path.abspath(__file__)))


def fail(what):
    """Ends the script that runs, by its name."""
    sys.exit(f"{os.path.basename(sys.argv[0])}: {what}")


def expect(what, got, wanted):
    if got != wanted:
        fail(f"{what}: {got!r}, not {wanted!r}")


def loaded(path):
    """The module that a script is, whatever its name ends in."""
    name = os.path.basename(path).removesuffix(".py")
    loader = importlib.machinery.SourceFileLoader(name, path)
    module = importlib.util.module_from_spec(importlib.util.spec_from_loader(name, loader))
    loader.exec_module(module)
    return module


def kit():
    """The kit's folder."""
    return os.path.dirname(subprocess.run(["rt", "doc"], capture_output=True, text=True, check=True).stdout.strip())


def free_ports(count):
    """So many ports at which nothing listens."""
    sockets = [socket.socket() for _ in range(count)]
    for it in sockets:
        it.bind(("127.0.0.1", 0))
    ports = [it.getsockname()[1] for it in sockets]
    for it in sockets:
        it.close()
    return ports


def free_port():
    return free_ports(1)[0]


def wait(process, port, seconds=30):
    """Until that process listens at the port."""
    end = time.monotonic() + seconds
    while time.monotonic() < end:
        if process.poll() is not None:
            fail(f"{process.args[0]}, which was to listen at {port}, ended with {process.returncode}")
        try:
            return socket.create_connection(("127.0.0.1", port)).close()
        except OSError:
            time.sleep(0.01)
    fail(f"nothing listens at {port}")


def commands_in(text):
    """The commands of a document's part, each with the lines that it prints."""
    commands = []
    for line in text.splitlines():
        if line.startswith("    $ "):
            commands.append((line[6:], []))
        elif line.startswith("    "):
            commands[-1][1].append(line[4:])
    return commands
