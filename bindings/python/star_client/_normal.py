"""One normal form of texts, the same as that of bindings/web/normal.mjs."""
import unicodedata

#: What is trimmed from both ends, and nothing else: Unicode's White_Space, U+001C to U+001F, and U+FEFF.
TRIMMED = ("\u0009\u000a\u000b\u000c\u000d\u001c\u001d\u001e\u001f\u0020\u0085\u00a0\u1680\u2000\u2001\u2002\u2003\u2004\u2005\u2006\u2007\u2008"
           "\u2009\u200a\u2028\u2029\u202f\u205f\u3000\ufeff")


def normalized(text: str, *, lower: bool = False) -> str:
    """The text without the characters of TRIMMED at its ends, in NFC, and in lower case if asked for.

    Lower case is Unicode's full mapping with its rule for the final sigma, and NFC again after it. A character that a
    version of Unicode brings or changes may differ if another version is known.
    """
    normal = unicodedata.normalize("NFC", text.strip(TRIMMED))
    return unicodedata.normalize("NFC", normal.lower()) if lower else normal
