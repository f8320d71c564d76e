import requests
import django.db
import os
from . import z
