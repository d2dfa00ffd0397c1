#!/usr/bin/env python3
"""Writes a calendar (RFC 5545) of the starts that `agenda plan --json` prints. Standard input has these lines."""
import datetime
import json
import sys


def text(value):
    """Returns a value as a calendar has it. Control characters can't be in a calendar."""
    value = "".join("?" if char < " " or char == "\x7f" else char for char in value)
    for char in "\\;,":
        value = value.replace(char, "\\" + char)
    return value


def put(line):
    """Writes a line. If it has more than 75 bytes, it continues on lines that begin with a blank."""
    part = ""
    for char in line:
        if len((part + char).encode()) > 75:
            sys.stdout.buffer.write(part.encode() + b"\r\n")
            part = " "
        part += char
    sys.stdout.buffer.write(part.encode() + b"\r\n")


now = datetime.datetime.now(datetime.timezone.utc).strftime("%Y%m%dT%H%M%SZ")
put("BEGIN:VCALENDAR")
put("VERSION:2.0")
put("PRODID:-//agenda//plan//EN")
for line in sys.stdin.buffer:
    start = json.loads(line)
    time = start["start"].replace("-", "").replace(":", "")
    put("BEGIN:VEVENT")
    put(f"UID:{time}-{text(start['job'])}@agenda")
    put(f"DTSTAMP:{now}")
    put(f"DTSTART:{time}")
    put("SUMMARY:" + text(start["run"]))
    put("DESCRIPTION:" + text(f"{start['job']} of {start['user']}" if "user" in start else start["job"]))
    put("END:VEVENT")
put("END:VCALENDAR")
