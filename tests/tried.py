"""The program that the scripts here try: $HYPERBALL, or else the one of these sources, built here or released."""
import os
import subprocess

BUILD = os.path.join(os.path.dirname(os.path.abspath(__file__)), "..", "build")
PROGRAM = os.environ.get("HYPERBALL") or subprocess.run([BUILD, "which"], stdout=subprocess.PIPE, check=True, text=True).stdout.strip()
