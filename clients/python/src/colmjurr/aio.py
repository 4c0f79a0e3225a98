"""The package for asyncio: `async with colmjurr.aio.connect(url) as store`, and then the same names as without it, with `await`."""
from .arrays import Array, ArrayInfo
from .channels import Channel
from .loading import Loader
from .store import Store, connect
from .transactions import Transaction
from .watching import Watch

__all__ = ["Array", "ArrayInfo", "Channel", "Loader", "Store", "Transaction", "Watch", "connect"]
