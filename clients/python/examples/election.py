#!/usr/bin/env python3
"""Elects one of several programs. Start it in two terminals; the second leads when the first has ended, in whatever way.

usage: election.py SOCKET NAME

The server is one that stays: cluster_main serve --stay --listen unix:SOCKET --nodes a,b
"""

import pathlib
import sys

sys.path.insert(0, str(pathlib.Path(__file__).resolve().parents[1]))

import yaltzumin

SOCKET, NAME = sys.argv[1:]


def term(server: yaltzumin.Connection, process: str) -> None:
    server.re_register("leader", process)
    print(f"{NAME} leads", flush=True)
    server.wait_for_end()
    print(f"{NAME} leads no more", flush=True)
    raise yaltzumin.Disconnected("the term has ended")


yaltzumin.lead("leadership", NAME, term, SOCKET)
