"""Tests of the tools: python3 -m unittest, in the folder tools."""
