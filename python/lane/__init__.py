"""The lane run of RV32IMC firmware: the proved library, and what its commands are made of.

    fw = lane.Firmware.read('handler.elf')
    fw.run().outcome              # Accepted or Refused (3 to 12)
    fw.run(inputs=(12, 255), rows=20000, steps=1000000).record
    lane.read_record(record)      # Accepted or Refused
    lane.write_record(outcome)

What the caller has to mend (1, 2, 15, 17, files that are no firmware) raises Failure, too little lent (13, 14) Undecided: the
statuses 2 and 3 of the commands. docs/RECORD.md says what the fields are.
"""
from .errors import Failure, Undecided
from .firmware import Firmware, Run
from .record import Accepted, Event, InputRange, Refused, Step, read_record, write_record
