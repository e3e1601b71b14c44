"""Tags of the EPC Tag Data Standard 1.13 and messages of LLRP 1.1, by the proved library libllrp_c.

    import socket
    from llrp_epc import Llrp

    llrp = Llrp()
    llrp.text_of_word(bytes.fromhex("3074257BF7194E4000001A85"))    # 'urn:epc:tag:sgtin-96:3.0614141.812345.6789'

    llrp.forms(bytes.fromhex("3074257BF7194E4000001A85"))["key"]        # 'gtin 80614141123458 6789'

    with socket.create_connection(("reader", 5084)) as connection:
        for message in llrp.stream(connection.makefile("rb")):
            print(message)

A message is a dict, as docs/json.md says. A text or a listing that is refused raises Refused, whose name docs/errors.md explains.
"""
from ._library import Octets
from ._llrp import Llrp, Message, Refused, Tag

__all__ = ["Llrp", "Message", "Octets", "Refused", "Tag"]
__version__ = "0.1.0"
