"""What the module in C has (_accelerator.c)."""

from typing import Dict, List, Mapping, Optional, Sequence, Tuple

from .calls import VersionPoint
from .txns import _Op, _Table

def keys_of(operations: Sequence[_Op], tables: Mapping[str, _Table], /) -> Optional[List[bytes]]: ...
def draft_of(
    call: Optional[int], version: VersionPoint, operations: Sequence[_Op], tables: Mapping[str, _Table], view: Mapping[bytes, Optional[bytes]], mark: bytes, /
) -> Optional[Tuple[Dict[bytes, Optional[bytes]], Dict[bytes, Optional[bytes]]]]: ...
