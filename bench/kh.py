"""The package of `python/kh`, for the scripts and modules of this folder. (Links are no files of a repository that `rt ci` takes.)"""
import importlib.util
import os
import sys

# (the folder of the repository by the name by which this was found, or where that is a link to this folder alone by its own)
TOPS = [os.path.dirname(os.path.dirname(path(__file__))) for path in (os.path.abspath, os.path.realpath)]
FOLDER = next(it for it in (os.path.join(top, "python", "kh") for top in TOPS) if os.path.isdir(it))
spec = importlib.util.spec_from_file_location("kh", os.path.join(FOLDER, "__init__.py"), submodule_search_locations=[FOLDER])
sys.modules["kh"] = importlib.util.module_from_spec(spec)
spec.loader.exec_module(sys.modules["kh"])
