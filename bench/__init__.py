"""Programs that try and measure the product from outside; bench/run is their one command line."""
from pathlib import Path

TOP = str(Path(__file__).resolve().parent.parent)


class Wrong(Exception):
    """What a trial found to be otherwise than it has to be."""
