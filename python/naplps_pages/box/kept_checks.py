"""What is kept of a page is believed only where it can be so: its file lies in the folder of a box, so others may have
written it.
"""
from typing import List, Optional

from ..collection import tables
from ..collection.every_file import FileFacts
from ..collection.tables import hashed
from ..notes import size_and_hash
from .kept_pages import KeptPage, KeptPart


def has_canonical(file: FileFacts, kept: KeptPage) -> bool:
    """Whether the canonical stream of an accepted page is kept."""
    return kept.canon is not None and hashed(kept.canon) == file.canon


def has_copy(file: FileFacts, kept: KeptPage) -> bool:
    """Whether the treated copy of a refused page is kept, with a note that is of this page and of this copy."""
    if kept.copy is None or kept.cure is None or file.own is None or hashed(kept.copy) != file.treated:
        return False
    known = {"grade": None if file.grade is None else tables.GRADES[file.grade], "entries": file.treated_entries,
             "source": {"bytes": file.size, "sha256": file.own.hex()}, "copy": size_and_hash(kept.copy)}
    return kept.cure == {"treatments": kept.cure.get("treatments"), **known}


def has_parts(file: FileFacts, kept: KeptPage) -> bool:
    """Whether a capture is kept, with parts of it; or that no page is among these."""
    if kept.parts == []:
        return True
    if kept.data is None or kept.parts is None or hashed(kept.data) != file.own:
        return False
    return _is_in_order(kept.parts, len(kept.data)) and all(part.more[0] <= part.offset for part in kept.parts)


def has_carved(file: FileFacts, kept: KeptPage) -> bool:
    """Whether the pages inside a file are kept. (That their bytes stand there, its file alone could say.)"""
    if kept.carved is None or sum(part.length for part in kept.carved) != len(kept.cut or b""):
        return False
    return _is_in_order(kept.carved, file.size)


def _is_in_order(parts: List[KeptPart], length: Optional[int]) -> bool:
    """Whether each part begins where the one before it ends or later, and the last ends within a length."""
    end = 0
    for part in parts:
        if part.offset < end or not (part.length or part.why):
            return False
        end = part.offset + part.length
    return length is None or end <= length
