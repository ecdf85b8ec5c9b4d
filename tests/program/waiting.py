#!/usr/bin/env python3
"""waiting.py interrupted|ceasing PAGE [ARGUMENT].., waiting.py stalling PAGE COUNT [ARGUMENT]..: runs the program with these arguments and a socket as its
input or output, and ends with its status.

A read of a socket that has a time limit ends with EINTR when the process is stopped and continued, though it handles no signal (signal(7)),
and with EAGAIN when the time is up; so does a write to one whose buffer is full.
`interrupted`: the program itself, stopped and continued several times before, within and after the page.
`ceasing`: ./subsume; the page comes, and then nothing until the time is up.
`stalling`: the program itself; COUNT bytes of its output are read, then nothing until it reports a failed write, then all that it wrote and still writes."""
import pathlib
import signal
import socket
import struct
import subprocess
import sys
import time


def interrupt(process):
    """Stops and continues a process while it waits in a read."""
    for _ in range(3):
        for number in (signal.SIGSTOP, signal.SIGCONT):
            time.sleep(0.02)
            process.send_signal(number)
    time.sleep(0.02)


def limited(option, seconds):
    """The two ends of a socket: ours, and theirs with a time limit."""
    ours, theirs = socket.socketpair()
    theirs.setsockopt(socket.SOL_SOCKET, option, struct.pack("ll", seconds, 0))
    return ours, theirs


def interrupted(page, *arguments):
    ours, theirs = limited(socket.SO_RCVTIMEO, 60)
    process = subprocess.Popen(["crates/subsume/out/subsume", *arguments], stdin=theirs)
    theirs.close()
    interrupt(process)
    text = pathlib.Path(page).read_bytes()
    for at in range(0, len(text), 5000):
        ours.sendall(text[at : at + 5000])
        interrupt(process)
    ours.close()
    return process.wait()


def ceasing(page, *arguments):
    ours, theirs = limited(socket.SO_RCVTIMEO, 1)
    process = subprocess.Popen(["./subsume", *arguments], stdin=theirs)
    theirs.close()
    ours.sendall(pathlib.Path(page).read_bytes())
    return process.wait()


def stalling(page, count, *arguments):
    ours, theirs = limited(socket.SO_SNDTIMEO, 1)
    theirs.setsockopt(socket.SOL_SOCKET, socket.SO_SNDBUF, 0)
    with open(page, "rb") as given:
        command = ["crates/subsume/out/subsume", *arguments]
        process = subprocess.Popen(command, stdin=given, stdout=theirs, stderr=subprocess.PIPE)
    theirs.close()
    text = ours.recv(int(count), socket.MSG_WAITALL)
    report = process.stderr.readline()
    while more := ours.recv(65536):
        text += more
    sys.stdout.buffer.write(text)
    sys.stderr.buffer.write(report + process.stderr.read())
    return process.wait()


sys.exit({"interrupted": interrupted, "ceasing": ceasing, "stalling": stalling}[sys.argv[1]](*sys.argv[2:]))
