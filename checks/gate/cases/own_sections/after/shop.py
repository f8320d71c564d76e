import os

import django.db

import requests

from . import z
