"""The simulated card, and a handset for it, for other programs: `from uicc import Card, Terminal`."""
from .card import Answer, Card, CardError, NoSuchFile, PowerLost, Proactive, StatusError
from .handset import Reply, Terminal
from .process import Ended, NotBuilt
from .status import Status
from .toolkit import AppletNow, ToolkitNow

__all__ = ["Answer", "AppletNow", "Card", "CardError", "Ended", "NoSuchFile", "NotBuilt", "PowerLost", "Proactive", "Reply", "Status",
           "StatusError", "Terminal", "ToolkitNow"]
__version__ = "0.2.0"
