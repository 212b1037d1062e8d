"""The VS Code extension as a .vsix, which `code --install-extension` takes: a zip with a manifest,
the same bytes each time."""
import json
import pathlib
import time
import zipfile
from typing import Any, Dict, List
from xml.sax.saxutils import escape, quoteattr

from packing import EXECUTABLE, PLAIN, is_executable

# The earliest time that a zip can hold.
EARLIEST = 315532800
REGULAR, UNIX = 0o100000, 3
LICENCE = "extension/LICENSE.txt"
TYPES = {
    ".json": "application/json",
    ".js": "application/javascript",
    ".txt": "text/plain",
    ".vsixmanifest": "text/xml",
}
HEAD = '<?xml version="1.0" encoding="utf-8"?>\n'
MANIFEST = """\
<PackageManifest Version="2.0.0" \
xmlns="http://schemas.microsoft.com/developer/vsx-schema/2011" \
xmlns:d="http://schemas.microsoft.com/developer/vsx-schema-design/2011">
  <Metadata>
    <Identity Language="en-US" Id={name} Version={version} Publisher={publisher} />
    <DisplayName>{display}</DisplayName>
    <Description xml:space="preserve">{description}</Description>
    <Tags>{tags}</Tags>
    <Categories>{categories}</Categories>
    <GalleryFlags>Public</GalleryFlags>
    <License>{licence}</License>
    <Properties>
      <Property Id="Microsoft.VisualStudio.Code.Engine" Value={engine} />
      <Property Id="Microsoft.VisualStudio.Code.ExtensionKind" Value="workspace" />
    </Properties>
  </Metadata>
  <Installation>
    <InstallationTarget Id="Microsoft.VisualStudio.Code" />
  </Installation>
  <Dependencies />
  <Assets>
    <Asset Type="Microsoft.VisualStudio.Code.Manifest" Path="extension/package.json" \
Addressable="true" />
    <Asset Type="Microsoft.VisualStudio.Services.Content.License" Path="{licence}" \
Addressable="true" />
  </Assets>
</PackageManifest>
"""


def manifest(package: Dict[str, Any]) -> str:
    """Returns extension.vsixmanifest for an extension with this package.json."""
    return HEAD + MANIFEST.format(
        name=quoteattr(package["name"]),
        version=quoteattr(package["version"]),
        publisher=quoteattr(package["publisher"]),
        display=escape(package["displayName"]),
        description=escape(package["description"]),
        tags=escape(",".join(it["id"] for it in package["contributes"]["languages"])),
        categories=escape(",".join(package["categories"])),
        engine=quoteattr(package["engines"]["vscode"]),
        licence=LICENCE,
    )


def content_types(names: List[str]) -> str:
    """Returns [Content_Types].xml, which names the type of each file of the zip."""
    lines = []
    for ending, kind in TYPES.items():
        lines.append(f'  <Default Extension="{ending}" ContentType="{kind}" />\n')
    for name in names:
        if pathlib.PurePosixPath(name).suffix not in TYPES:
            kind = "application/octet-stream"
            lines.append(f'  <Override PartName="/{name}" ContentType="{kind}" />\n')
    schema = "http://schemas.openxmlformats.org/package/2006/content-types"
    return f'{HEAD}<Types xmlns="{schema}">\n{"".join(lines)}</Types>\n'


def write_vsix(top: pathlib.Path, seconds: int, place: pathlib.Path) -> None:
    """Writes the extension in the sources below `top`."""
    folder = top / "tools/editors/vscode"
    files = {f"extension/{it.relative_to(folder)}": it for it in folder.rglob("*") if it.is_file()}
    files[LICENCE] = top / "LICENSE"
    package = json.loads((folder / "package.json").read_text(encoding="utf-8"))
    entries = [
        ("extension.vsixmanifest", manifest(package).encode(), PLAIN),
        ("[Content_Types].xml", content_types(sorted(files)).encode(), PLAIN),
    ]
    for name, file in sorted(files.items()):
        entries.append((name, file.read_bytes(), EXECUTABLE if is_executable(file) else PLAIN))
    when = time.gmtime(max(seconds, EARLIEST))[:6]
    with zipfile.ZipFile(place, "w") as made:
        for name, content, mode in entries:
            info = zipfile.ZipInfo(name, when)
            info.create_system, info.external_attr = UNIX, (REGULAR | mode) << 16
            made.writestr(info, content, zipfile.ZIP_DEFLATED, 9)
