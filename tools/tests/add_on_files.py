"""Definitions of Add-On Instructions as Studio 5000 writes them, for the tests."""

from __future__ import annotations

from l5x_files import file, rungs

SYSTEM = (
    '<Parameter Name="EnableIn" TagType="Base" DataType="BOOL" Usage="Input" Radix="Decimal" Required="false" Visible="false"'
    ' ExternalAccess="Read Only"/>'
    '<Parameter Name="EnableOut" TagType="Base" DataType="BOOL" Usage="Output" Radix="Decimal" Required="false" Visible="false"'
    ' ExternalAccess="Read Only"/>'
)


def _dimensions(dim: int | None) -> str:
    return "" if dim is None else f'Dimensions="{dim}" '


def _default(data: str) -> str:
    return f'<DefaultData Format="Decorated">{data}</DefaultData>' if data else ""


def parameter(name: str, type_name: str, usage: str, dim: int | None = None, required: bool = True, data: str = "", more: str = "") -> str:
    told = f'Required="{str(required).lower()}" Visible="true" ExternalAccess="Read/Write"'
    head = f'<Parameter Name="{name}" TagType="Base" DataType="{type_name}" {_dimensions(dim)}Usage="{usage}" {told} {more}>'
    return f"{head}{_default(data)}</Parameter>"


def taken_in(name: str, type_name: str = "BOOL", **more: object) -> str:
    return parameter(name, type_name, "Input", **more)


def given_out(name: str, type_name: str = "BOOL", **more: object) -> str:
    return parameter(name, type_name, "Output", **more)


def in_out(name: str, type_name: str, dim: int | None = None) -> str:
    return parameter(name, type_name, "InOut", dim, more='Constant="false"')


def local(name: str, type_name: str, dim: int | None = None, data: str = "") -> str:
    return f'<LocalTag Name="{name}" DataType="{type_name}" {_dimensions(dim)}ExternalAccess="None">{_default(data)}</LocalTag>'


def timer_data(pre: int) -> str:
    return f'<Structure DataType="TIMER"><DataValueMember Name="PRE" DataType="DINT" Radix="Decimal" Value="{pre}"/></Structure>'


def add_on(name: str, parameters: str = "", logic: list[str] | None = None, locals_: str = "", more: str = "", routines: str = "") -> str:
    told = 'ExecutePrescan="false" ExecutePostscan="false" ExecuteEnableInFalse="false"' if "Execute" not in more else ""
    ladder = f'<Routine Name="Logic" Type="RLL"><RLLContent>{rungs(*(logic or ["NOP();"]))}</RLLContent></Routine>'
    return (
        f'<AddOnInstructionDefinition Name="{name}" Revision="1.0" {told} {more}>'
        f"<Parameters>{SYSTEM}{parameters}</Parameters><LocalTags>{locals_}</LocalTags>"
        f"<Routines>{routines or ladder}</Routines></AddOnInstructionDefinition>"
    )


def with_add_ons(definitions: str, rung: str = "NOP();", tags: str = "", **more: str) -> str:
    """A controller with these definitions, and with the program P in a continuous task."""
    listed = f"<AddOnInstructionDefinitions>{definitions}</AddOnInstructionDefinitions>"
    return file(rung, tags, **more).replace("<Tags>", listed + "<Tags>", 1)
