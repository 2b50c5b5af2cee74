"""What the tests share that call from several threads at once."""

import threading


def run(work):
    """Calls `work` in four threads at once, and waits for their ends."""
    threads = [threading.Thread(target=work) for _ in range(4)]
    for thread in threads:
        thread.start()
    for thread in threads:
        thread.join()
