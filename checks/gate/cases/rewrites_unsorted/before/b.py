from . import z
import sys
import requests
from __future__ import annotations
import os
