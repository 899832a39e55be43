"""The tools of this repository, by what they are for. The commands of the folder above run their modules."""
import os
import sys

TOP = os.path.dirname(os.path.dirname(os.path.dirname(os.path.abspath(__file__))))
# Take the package scanvolt of this checkout, even if another one is installed; and the list of measures.
sys.path[:0] = [TOP + "/python", TOP + "/bench"]
