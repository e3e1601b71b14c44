"""What the scripts share of ports: one that is free, one that is held, and waiting until something listens there."""
import contextlib
import socket
import time


def free_port():
    """Returns a port of this machine that the system says is free."""
    with socket.create_server(("127.0.0.1", 0)) as listener:
        return listener.getsockname()[1]


@contextlib.contextmanager
def held_port():
    """Gives a port that the system gives to no one else meanwhile; a program that asks for this port can listen there."""
    with socket.socket() as holder:
        holder.bind(("127.0.0.1", 0))
        # (set before, this would let the system choose one that another script holds)
        holder.setsockopt(socket.SOL_SOCKET, socket.SO_REUSEADDR, 1)
        yield holder.getsockname()[1]


def listens_at(port):
    """Returns whether a port of this machine is listened at. Nothing connects to it meanwhile, as a reader serves one client."""
    with open("/proc/net/tcp", encoding="ascii") as lines:
        return f":{port:04X} 00000000:0000 0A" in lines.read()


def wait_until(is_so, seconds, what):
    """Waits until something is so; fails where it is not after these seconds."""
    late = time.monotonic() + seconds
    while not is_so():
        if time.monotonic() > late:
            raise TimeoutError(f"waited {seconds} seconds in vain: {what}")
        time.sleep(0.002)
