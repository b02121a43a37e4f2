"""What `office` adds around the program, as functions: sheets that are read, rows that are made, copies, and what people are told."""
import os

TOP = os.path.dirname(os.path.dirname(os.path.dirname(os.path.abspath(__file__))))
