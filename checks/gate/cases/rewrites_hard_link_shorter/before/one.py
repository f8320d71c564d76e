import sys
import os
import sys
import os




x = 1
