"""DICOM files as films of their stored values, and recordings back in DICOM files; trees of DICOM files in JPEG-LS.

    python3 -m jlsrec.dicom to-film [--offset] FILE.. > FILM
    python3 -m jlsrec.dicom to-dicom [--extended] RECORDING OUT FILE..
    python3 -m jlsrec.dicom compress TREE OUT
    python3 -m jlsrec.dicom restore OUT TREE
    python3 -m jlsrec.dicom verify OUT [TREE]

`film` makes films, and `files` puts recordings into files. They want pydicom, and for compressed files what pydicom
decodes them by (gdcm). `tree` does the others: by the bytes of `elements` a file is `coded`, `each` file is put in its
place (`places`) and gets a line in the `manifest`, and workers (`work`) have them by batches.
"""


class Refused(Exception):
    """Why a film or a file can't be made."""
