"""What users start, and what that stands on. An installation has this folder."""
