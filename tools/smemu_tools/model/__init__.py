"""What says by other means than the emulator's what it is to answer. Nothing here imports what
users start."""
