"""Checks of the package's parts for pydicom, Pillow and imageio: python3 tools.py. Where one of these isn't there it says so."""

from __future__ import annotations

import copy
import importlib.util
import io
import itertools
import shutil
import subprocess
import sys
import warnings
from pathlib import Path

import numpy as np

import jlsrec
from cases import case, end, refuses

noise = np.random.default_rng(3)


def picture(shape: tuple[int, ...], bits: int, kind: type) -> np.ndarray:
    """Smooth samples with some noise."""
    ramp = np.add.outer(np.arange(shape[0]) * 3, np.arange(shape[1]) * 5)
    ramp = ramp if len(shape) == 2 else np.stack([ramp + 7 * c for c in range(shape[2])], axis=2)
    return ((ramp + noise.integers(0, 9, shape)) % (1 << bits)).astype(kind)


def ended(call):
    """What a call returns, or its error, and the texts of its warnings."""
    with warnings.catch_warnings(record=True) as told:
        warnings.simplefilter("always")
        try:
            result = call()
        except BaseException as error:
            result = error
    return result, [str(each.message) for each in told if "jlsrec" in str(each.message)]


def same(got, want: np.ndarray) -> bool:
    return isinstance(got, np.ndarray) and got.shape == want.shape and got.dtype == want.dtype and bool((got == want).all())


def missing(name: str, package: str) -> bool:
    if importlib.util.find_spec(name) is not None:
        return False
    print(f"{name}: not tested, since it isn't there; apt-get install {package}")
    return True


alone = "import sys, jlsrec; sys.exit(bool({'pydicom', 'PIL', 'imageio'} & set(sys.modules)))"
case("the package goes without them", subprocess.run([sys.executable, "-c", alone]).returncode == 0)


# ---- pydicom


def check_pydicom() -> None:
    import jlsrec.pydicom as handler
    import pydicom
    from pydicom.encaps import encapsulate
    from pydicom.uid import ExplicitVRLittleEndian, JPEGLSLossless, JPEGLSNearLossless

    gdcm = next((each for each in pydicom.config.pixel_data_handlers if each.HANDLER_NAME == "GDCM"), None)
    has_gdcm = gdcm is not None and gdcm.is_available()
    if not has_gdcm:
        print("GDCM beside pydicom: not tested, since it isn't there; apt-get install python3-gdcm")
    others = list(pydicom.config.pixel_data_handlers)

    def dataset(values: np.ndarray, bits: int, signed: bool) -> pydicom.Dataset:
        """A data set of values (frames, rows, columns) or (frames, rows, columns, 3), which aren't compressed."""
        made, made.file_meta = pydicom.Dataset(), pydicom.dataset.FileMetaDataset()
        made.is_little_endian, made.is_implicit_VR = True, False
        made.file_meta.TransferSyntaxUID = ExplicitVRLittleEndian
        made.file_meta.MediaStorageSOPClassUID = made.SOPClassUID = "1.2.840.10008.5.1.4.1.1.12.1"
        made.file_meta.MediaStorageSOPInstanceUID = made.SOPInstanceUID = "1.2.3.4"
        made.SamplesPerPixel = 3 if values.ndim == 4 else 1
        made.PhotometricInterpretation = "RGB" if values.ndim == 4 else "MONOCHROME2"
        if values.ndim == 4:
            made.PlanarConfiguration = 0
        made.NumberOfFrames, made.Rows, made.Columns = values.shape[:3]
        made.BitsAllocated, made.BitsStored, made.HighBit = values.dtype.itemsize * 8, bits, bits - 1
        made.PixelRepresentation = int(signed)
        made.PixelData = values.tobytes() + b"\0" * (values.nbytes % 2)
        made["PixelData"].VR = "OB" if values.dtype.itemsize == 1 else "OW"
        return made

    def coded(plain: pydicom.Dataset, frames: list[bytes], **how) -> pydicom.Dataset:
        made = copy.deepcopy(plain)
        made.file_meta.TransferSyntaxUID = JPEGLSLossless
        made.PixelData = encapsulate(frames, **how)
        made["PixelData"].VR, made["PixelData"].is_undefined_length = "OB", True
        return made

    def frames_of(values: np.ndarray, bits: int) -> list[bytes]:
        words = values.view(f"u{values.dtype.itemsize}") & values.dtype.type((1 << bits) - 1).view(f"u{values.dtype.itemsize}")
        return [jlsrec.encode(frame, (1 << bits) - 1) for frame in words]

    def values_of(frames: int, colors: int, bits: int, signed: bool) -> np.ndarray:
        shape = (31, 46) if colors == 1 else (31, 46, 3)
        values = np.stack([picture(shape, bits, np.uint8 if bits == 8 else np.uint16) for _ in range(frames)])
        if signed:
            values = values.astype(np.int64) - (1 << bits - 1)
            values = values.astype(np.int8 if bits == 8 else np.int16)
        return values

    handler.register()
    case("it is asked first, once", [each.HANDLER_NAME for each in pydicom.config.pixel_data_handlers][0] == "jlsrec")
    handler.register()
    case("however often it is registered", pydicom.config.pixel_data_handlers == [handler, *others])

    for frames, colors, bits, signed in itertools.product((1, 3), (1, 3), (8, 10, 12, 16), (False, True)):
        if colors == 3 and signed:
            continue
        values = values_of(frames, colors, bits, signed)
        plain = dataset(values, bits, signed)
        want = plain.pixel_array
        name = f"{frames} frames, {colors} components, {bits} bits, {'signed' if signed else 'unsigned'}"
        source = frames_of(values, bits)
        for which, how in {"": {}, ", in fragments": {"fragments_per_frame": 2}, ", no table": {"has_bot": False}}.items():
            made = coded(plain, source, **how)
            got, told = ended(lambda: made.pixel_array)
            case(name + which, same(got, want) and not told)
        # Several frames in colour GDCM takes for something else, and signs it doesn't extend.
        if has_gdcm and not (colors == 3 and frames > 1):
            made = coded(plain, source)
            made.convert_pixel_data("gdcm")
            case(f"{name}: GDCM's values", bool(((made._pixel_array ^ got) & ((1 << bits) - 1) == 0).all()))
        made = coded(plain, source)
        made.file_meta.TransferSyntaxUID = JPEGLSNearLossless
        got, told = ended(lambda: made.pixel_array)
        case(f"{name}: near lossless by its name", same(got, want) and not told)
        made = coded(plain, source)
        made.convert_pixel_data("jlsrec")
        case(f"{name}: by its name", same(made.pixel_array, want))

    # Values of two's complement in all bits allocated, as some encoders have them.
    values = values_of(1, 1, 12, True)
    made = coded(dataset(values, 12, True), [jlsrec.encode(values[0].view(np.uint16), 65535)])
    case("signed words", same(made.pixel_array, values[0]))

    # What pydicom brings, beside GDCM and beside what it was made of.
    for path in sorted(Path(pydicom.data.__file__).with_name("test_files").glob("*.dcm")):
        try:
            found = pydicom.dcmread(path)
            if found.file_meta.TransferSyntaxUID not in (JPEGLSLossless, JPEGLSNearLossless):
                continue
        except Exception:
            continue
        got, told = ended(lambda: found.pixel_array)
        plain = path.with_name(path.name.replace("_jpeg_ls_lossless", ""))
        case(f"{path.name}: as its source", not told and same(got, pydicom.dcmread(plain).pixel_array))
        if has_gdcm:
            found.convert_pixel_data("gdcm")
            case(f"{path.name}: GDCM's values", same(found._pixel_array, got))

    # Files that GDCM and DCMTK make, of which some are interleaved or have losses: those go on without a word.
    handed_on = 0
    for number, (frames, colors, bits, signed) in enumerate(
        [(1, 1, 8, False), (1, 1, 12, True), (2, 1, 16, False), (1, 1, 16, True), (1, 3, 8, False), (1, 3, 16, False), (3, 1, 10, False)]
    ):
        values = values_of(frames, colors, bits, signed)
        plain = dataset(values, bits, signed)
        plain.save_as("plain.dcm", write_like_original=False)
        want = plain.pixel_array
        for words in (["gdcmconv", "--jpegls"], ["dcmcjpls"], ["dcmcjpls", "+in"], ["dcmcjpls", "+il"], ["dcmcjpls", "+en", "+md", "2"]):
            Path("made.dcm").unlink(missing_ok=True)
            if not shutil.which(words[0]):
                continue
            if subprocess.run([*words, "plain.dcm", "made.dcm"], stderr=subprocess.DEVNULL, stdout=subprocess.DEVNULL).returncode != 0:
                continue
            made = pydicom.dcmread("made.dcm")
            ours, _ = ended(lambda: handler.get_pixeldata(made))
            handed_on += isinstance(ours, NotImplementedError)
            if isinstance(ours, NotImplementedError) and not has_gdcm:
                continue
            got, told = ended(lambda: pydicom.dcmread("made.dcm").pixel_array)
            if "+en" in words or (frames > 1 and colors > 1):
                case(f"{' '.join(words)}, {number}: nothing is said", not told)
            else:
                case(f"{' '.join(words)}, {number}", not told and same(got, want))
    if shutil.which("dcmcjpls"):
        case("some are handed on", handed_on > 0)
    else:
        print("files of DCMTK: not tested, since it isn't there; apt-get install dcmtk")

    # Damaged files.
    values = values_of(2, 1, 12, False)
    plain, source = dataset(values, 12, False), frames_of(values, 12)
    wrong = coded(plain, source)
    wrong.Rows = 30
    large = coded(plain, source)
    large.BitsAllocated, large.BitsStored, large.HighBit = 8, 8, 7
    flipped = bytearray(source[1])
    flipped[len(flipped) // 2] ^= 255
    cases = {
        "a bit that changed": (coded(plain, [source[0], bytes(flipped)]), "frame 2"),
        "a codestream that breaks off": (coded(plain, [source[0], source[1][:300]]), "frame 2: truncated"),
        "a frame too few": (coded(plain, source[:1]), "there are 1 of 2 frames"),
        "a frame too many": (coded(plain, [*source, source[0]]), "more than 2 frames"),
        "other rows": (wrong, "must be (30, 46)"),
        "other bits": (large, "maxval 4095"),
        "no codestream": (coded(plain, [b"P5 1 1 255 x", source[0]]), "frame 1: no SOI"),
    }
    for strict in (False, True):
        handler.register(strict)
        for name, (made, text) in cases.items():
            pydicom.config.pixel_data_handlers[1:] = []
            got, told = ended(lambda: made.pixel_array)
            pydicom.config.pixel_data_handlers[1:] = others
            if strict:
                case(f"{name}, strict: {got!r}", isinstance(got, handler.DamagedPixelData) and text in str(got) and not told)
            else:
                case(f"{name}: {got!r}, {told}", isinstance(got, ValueError) and len(told) == 1 and text in told[0])
    if has_gdcm:
        handler.register()
        got, told = ended(lambda: cases["other rows"][0].pixel_array)
        case("the next handler is asked of the damaged, with a warning", len(told) == 1)
    handler.unregister()
    case("it is gone again", pydicom.config.pixel_data_handlers == others)


# ---- Pillow


def check_pillow() -> None:
    import jlsrec.pillow
    from PIL import Image, UnidentifiedImageError

    jlsrec.pillow.register()
    gray, deep, color = picture((31, 46), 8, np.uint8), picture((31, 46), 12, np.uint16), picture((31, 46, 3), 8, np.uint8)
    for name, array, maxval, mode in [("gray", gray, 255, "L"), ("four bits", gray >> 4, 15, "L"), ("deep", deep, 4095, "I;16"),
                                      ("all bits", deep * 16, 65535, "I;16"), ("colour", color, 255, "RGB")]:
        data = jlsrec.encode(array, maxval)
        Path("one.jls").write_bytes(data)
        with Image.open("one.jls") as image:
            case(f"{name}: opened", (image.format, image.mode, image.size, image.info["maxval"]) == ("JPEG-LS", mode, (46, 31), maxval))
            case(f"{name}: its values", bool((np.asarray(image) == array).all()))
            image.save("two.jls")
        case(f"{name}: saved again", Path("two.jls").read_bytes() == data)
        image = Image.open(io.BytesIO(data))
        case(f"{name}: from memory", bool((np.asarray(image.copy()) == array).all()))
        memory = io.BytesIO()
        Image.fromarray(array).save(memory, format="JPEG-LS", maxval=maxval)
        case(f"{name}: to memory", memory.getvalue() == data)
    Image.fromarray(deep.astype(np.int32)).save("two.jls", maxval=4095, preset=(20, 70, 300, 32))
    case("mode I, with a preset", jlsrec.read_header(Path("two.jls").read_bytes()).preset == (20, 70, 300, 32))
    jlsrec.write("film.jls", [gray, gray // 2])
    case("a recording is its first frame", bool((np.asarray(Image.open("film.jls")) == gray).all()))
    data = jlsrec.encode(gray)
    Path("spiff.jls").write_bytes(data[:2] + b"\xff\xe8\x00\x04ab" + b"\xff\xfe\xff\xff" + b"c" * 65533 + data[2:])
    case("segments in front", bool((np.asarray(Image.open("spiff.jls")) == gray).all()))

    for mode in ("RGBA", "P", "1", "F", "CMYK"):
        refuses(f"mode {mode}", OSError, mode, Image.new(mode, (4, 4)).save, "no.jls")
    refuses("values over 16 bits", OSError, "65535", Image.fromarray(np.full((4, 4), 70000, np.int32)).save, "no.jls")
    refuses("values over maxval", ValueError, "maxval", Image.fromarray(deep).save, "no.jls", maxval=100)
    case("nothing is left of those", not Path("no.jls").exists())
    refuses("deep colour", OSError, "over 8 bits", Image.open, io.BytesIO(jlsrec.encode(color.astype(np.uint16), 4095)))
    refuses("no header", UnidentifiedImageError, "identify", Image.open, io.BytesIO(data[:15]))
    refuses("a picture that breaks off", OSError, "truncated", Image.open(io.BytesIO(data[:200])).load)
    memory = io.BytesIO()
    Image.fromarray(color).save(memory, format="JPEG")
    case("JPEG stays JPEG", Image.open(memory).format == "JPEG")


# ---- imageio


def check_imageio() -> None:
    import imageio
    import jlsrec.imageio

    jlsrec.imageio.register()
    jlsrec.imageio.register()
    deep, color = picture((31, 46), 12, np.uint16), picture((31, 46, 3), 16, np.uint16)
    for name, array, maxval in [("deep", deep, 4095), ("deep colour", color, 65535), ("gray", (deep >> 4).astype(np.uint8), 255)]:
        imageio.imwrite("one.jls", array, maxval=maxval)
        case(f"{name}: written", Path("one.jls").read_bytes() == jlsrec.encode(array, maxval))
        got = imageio.imread("one.jls")
        case(f"{name}: read", same(np.asarray(got), array) and got.meta["maxval"] == maxval)
    imageio.mimwrite("film.jls", [deep, deep // 2, deep // 3], maxval=4095)
    frames = imageio.mimread("film.jls")
    case("a film", len(frames) == 3 and all((got == deep // number).all() for number, got in enumerate(frames, 1)))
    with imageio.get_reader("film.jls") as reader:
        case("its third frame", bool((reader.get_data(2) == deep // 3).all()) and reader.get_length() == 3)
    refuses("values over maxval", ValueError, "maxval", imageio.imwrite, "two.jls", deep, maxval=100)
    Path("cut.jls").write_bytes(Path("film.jls").read_bytes()[:-50])
    refuses("a film that breaks off", ValueError, "truncated", imageio.mimread, "cut.jls")


if not missing("pydicom", "python3-pydicom"):
    check_pydicom()
if not missing("PIL", "python3-pil"):
    check_pillow()
if not missing("imageio", "python3-imageio"):
    check_imageio()
end()
