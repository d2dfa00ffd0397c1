#!/usr/bin/env python3
"""Prints the events of the calendar in the given file, as python3-icalendar reads them, and the size of its longest line."""
import sys

import icalendar

data = open(sys.argv[1], "rb").read()
for event in icalendar.Calendar.from_ical(data).walk("VEVENT"):
    print(event.decoded("DTSTART").strftime("%a %d %b %H:%M %Z"), event["UID"], event["SUMMARY"], event["DESCRIPTION"], sep="\t")
print("longest line:", max(len(line) for line in data.split(b"\r\n")), "bytes")
