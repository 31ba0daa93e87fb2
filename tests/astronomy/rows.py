"""The rows of a table as lines, read by astropy, which wants names for the columns: rows.py TABLE"""
import sys

from astropy.io import fits

with fits.open(sys.argv[1]) as units:
    table = units[1]
    for column, name in enumerate(("number", "ra", "dec")):
        table.columns[column].name = name
    for row in table.data:
        print(*(int(value) for value in row))
