"""Lets the tools here import what they share with the others: the modules in tools/client, and those in tools."""
import os
import sys

TOOLS = os.path.dirname(os.path.dirname(os.path.abspath(__file__)))

sys.path += [os.path.join(TOOLS, "client"), TOOLS]
