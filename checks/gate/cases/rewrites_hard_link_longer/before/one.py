import sys, os, json
x = 1
