"""Losses of power at random moments of commands, after which any part of what was not synced yet may be there."""
from cuts import *

SLOW = True


class OfCreate(Create, LosesPower):
    pass


class OfWrite(Write, LosesPower):
    pass


class OfServe(Serve, LosesPower):
    pass


class OfMakeVolume(MakeVolume, LosesPower):
    pass


class OfWriteVolume(WriteVolume, LosesPower):
    pass
