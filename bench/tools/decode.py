"""Says how many microseconds of the processor a file's samples take: decode.py gdcm|pydicom|jlsrec FILE. By GDCM alone,
by pydicom with GDCM's handler, or by pydicom with jlsrec's."""

import sys
import time

what, name = sys.argv[1:]
if what == "gdcm":
    import gdcm

    reader = gdcm.ImageReader()
    reader.SetFileName(name)
    begin = time.process_time()
    if not reader.Read():
        sys.exit(f"{name}: GDCM can't read it")
    reader.GetImage().GetBuffer()
else:
    import pydicom

    if what == "jlsrec":
        import jlsrec.pydicom

        jlsrec.pydicom.register(strict=True)
        jlsrec.library_version()
    dataset = pydicom.dcmread(name)
    begin = time.process_time()
    dataset.convert_pixel_data("" if what == "jlsrec" else "gdcm")
print(int((time.process_time() - begin) * 1e6))
