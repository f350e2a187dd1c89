"""What happens between two runs to the devices that are kept, for kept.py."""
import datetime

from kept_devices import LAST, chance


def started(device):
    """A device is started, or its objects change, and it tells so; whether it tells that at all. What it logs from then on is
    dated behind its start."""
    if device.restart is not None and (device.revision is None or chance.random() < 0.5):
        device.restart = max(log.clock for log in device.logs.values()) + datetime.timedelta(minutes=1)
        for log in device.logs.values():
            log.clock = device.restart
    elif device.revision is not None:
        device.revision += 1
    return device.word() != (None, None)


def changed(device, log):
    """Something happens to a log. One that began anew keeps all until a run has seen it, where its device doesn't tell
    so: no octet would tell a restart whose records are gone from a gap, nor one behind a large number from numbers that
    come round. Where it does, it keeps something."""
    what = chance.random()
    if log.fresh and device.word() != (None, None):
        log.log(chance.choice((0, 1, 20, 120, log.room_for + 50)))
    elif log.fresh:
        log.log(chance.randrange(min(3, log.room_for - len(log.held))))
    elif what < 0.7:
        log.log(chance.choice((0, 1, 3, 20, 120)))
    elif what < 0.8:
        log.log(log.room_for + chance.randrange(50))
    elif what < 0.9 or log.total > LAST // 2:
        log.log(chance.randrange(5))
        log.purge()
        log.log(chance.randrange(3))
    elif what < 0.93:
        log.clock -= datetime.timedelta(hours=1)
        log.log(chance.choice((3, 120)))
    else:
        kept, tells = log.total, started(device)
        log.begin(0)
        log.log(chance.choice((1, 5, kept + 100 if tells else min(kept + 3, log.room_for - 5))))
