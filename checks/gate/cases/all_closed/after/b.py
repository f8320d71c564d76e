from __future__ import annotations

import os
import sys

import requests

from . import z
