"""Names of projects that are required often, for a name that was likely meant where a package index has no such one.

A package index isn't asked for all its names, which are hundreds of thousands; what is found here is asked for by name,
and said only where the index has it.
"""

from __future__ import annotations

import difflib
from collections.abc import Iterable, Iterator

NAMES = """
aiofiles aiohttp alembic altair anyio appdirs arrow asgiref astropy asyncpg attrs authlib autopep8 azure-core babel
bandit bcrypt beautifulsoup4 black bleach blinker bokeh boto3 botocore build cachetools celery certifi cffi chardet
charset-normalizer click cloudpickle colorama coloredlogs configargparse coverage cryptography cython dask databricks
dateparser decorator deepdiff deprecated dill distlib distributed django django-cors-headers django-debug-toolbar
django-filter djangorestframework dnspython docker docutils email-validator faker fastapi filelock flake8 flask
flask-cors flask-login flask-migrate flask-sqlalchemy fsspec gensim gevent gitpython google-api-core google-auth
google-cloud-storage graphviz greenlet grpcio gunicorn h5py httpcore httptools httpx huggingface-hub humanize
hypothesis idna imageio importlib-metadata ipykernel ipython isort itsdangerous jaraco-classes jedi jinja2 jmespath
joblib jsonpatch jsonschema jupyter jupyterlab keras keyring kombu langchain lightgbm lxml mako mariadb markdown
markdown-it-py markupsafe marshmallow matplotlib mccabe mkdocs mkdocs-material mock more-itertools moto mpmath msgpack
multidict mypy mysqlclient nbconvert networkx nltk notebook numba numpy oauthlib openai opencv-python openpyxl orjson
packaging pandas paramiko parso passlib pathspec peewee pendulum pexpect pillow pip pip-tools pipenv platformdirs
playwright plotly pluggy poetry polars pre-commit prometheus-client prompt-toolkit protobuf psutil psycopg psycopg2
psycopg2-binary pyarrow pyasn1 pycparser pycryptodome pydantic pydantic-settings pydot pyflakes pygments pyinstaller
pyjwt pylint pymongo pymysql pynacl pyodbc pyopenssl pyparsing pyserial pyspark pytest pytest-asyncio pytest-cov
pytest-django pytest-mock pytest-xdist python-dateutil python-dotenv python-multipart python-slugify pytz pywin32
pyyaml pyzmq redis regex requests requests-oauthlib requests-toolbelt responses rich rsa ruff s3fs s3transfer
scikit-image scikit-learn scipy scrapy seaborn selenium sentry-sdk setuptools setuptools-scm shapely simplejson six
snowflake-connector-python sortedcontainers soupsieve sphinx sphinx-rtd-theme sqlalchemy sqlmodel sqlparse starlette
statsmodels streamlit structlog sympy tabulate tenacity tensorflow termcolor threadpoolctl tiktoken tokenizers toml
tomli tomlkit toolz torch torchvision tornado tox tqdm traitlets transformers trio twine typer types-requests
typing-extensions tzdata tzlocal ujson urllib3 uvicorn uvloop virtualenv watchdog watchfiles wcwidth websocket-client
websockets werkzeug wheel wrapt xarray xgboost xlrd xlsxwriter xmltodict yarl zipp
""".split()
MOST = 3


def alike(name: str, known: Iterable[str]) -> Iterator[str]:
    """The names that are most like another one, of the usual ones and of some that are known beside."""
    return iter(difflib.get_close_matches(name, sorted({*NAMES, *known} - {name}), MOST, 0.75))
