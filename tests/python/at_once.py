"""Work in several threads."""
import threading


def in_eight_threads(work):
    """Runs the same work in eight threads, up to the end of all."""
    threads = [threading.Thread(target=work) for _ in range(8)]
    for thread in threads:
        thread.start()
    for thread in threads:
        thread.join()
